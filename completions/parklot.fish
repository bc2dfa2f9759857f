# Completes the words of `parklot` in fish: source this file. The words are those of parklot.bash beside it.

set -g __parklot_words (status dirname)/parklot.bash

function __parklot_complete
    set -l before (commandline -opc)
    set -l begun (commandline -ct)
    set -l words (bash $__parklot_words words "$begun" $before[2..-1])
    if test -n "$words"
        printf '%s\n' $words
    else
        __fish_complete_path "$begun"
    end
end

complete -c parklot -f -a '(__parklot_complete)'
