// seat.hpp: a seat that is given back by itself, and moved but never copied.

#ifndef PARKLOT_SEAT_HPP
#define PARKLOT_SEAT_HPP

#include "parklot.h"

#include <cstddef>
#include <cstdint>
#include <optional>
#include <utility>
#include <vector>

namespace parklot {

class Seat {
public:
    Seat() = default;
    Seat(const Seat &) = delete;
    Seat &operator=(const Seat &) = delete;

    Seat(Seat &&other) noexcept : seat(std::exchange(other.seat, parklot_seat{})) {}

    Seat &operator=(Seat &&other) noexcept
    {
        std::swap(seat, other.seat);
        return *this;
    }

    // A seat in the middle of a call can't be given back, and stays where it is: nobody ends a call by going away.
    ~Seat() { parklot_free(&seat); }

    // For the calls of parklot.h.
    operator parklot_seat *() { return &seat; }

    uint32_t number()
    {
        uint32_t number = 0;
        parklot_number(&seat, &number);
        return number;
    }

private:
    friend std::optional<std::vector<Seat>> seats(const std::vector<uint32_t> &, std::size_t, uint32_t &);
    parklot_seat seat{};
};

// A table's seats, or none and why.
inline std::optional<std::vector<Seat>> seats(const std::vector<uint32_t> &starts, std::size_t count, uint32_t &answer)
{
    std::vector<parklot_seat> made(count);
    answer = parklot_new(starts.data(), starts.size(), 1, 1, UINT64_C(1) << 40, made.data(), made.size());
    if (answer != PARKLOT_OK)
        return std::nullopt;
    std::vector<Seat> seats(count);
    for (std::size_t at = 0; at < count; at++)
        seats[at].seat = made[at];
    return seats;
}

} // namespace parklot

#endif
