// SPDX-FileCopyrightText: 2026 the Ginavoru authors
// SPDX-License-Identifier: GPL-2.0-only

#ifndef TORA_PEAK_H
#define TORA_PEAK_H

#include "ns3/nstime.h"

#include <algorithm>
#include <cstdint>

namespace ns3
{

/**
 * \ingroup tora
 * \brief The most bytes in any second of simulated time; seconds begin at 0 s, 1 s, and so on.
 */
class ToraPeak
{
  public:
    /**
     * Counts bytes.
     *
     * \param at when they were sent; no earlier than those before
     * \param bytes how many
     */
    void Add(Time at, uint64_t bytes)
    {
        int64_t second = at.GetNanoSeconds() / 1000000000;
        if (second != m_second)
        {
            m_second = second;
            m_bytes = 0;
        }
        m_bytes += bytes;
        m_most = std::max(m_most, m_bytes);
    }

    /// \returns the most bytes in any second until now, or 0 where there were none
    uint64_t GetMost() const
    {
        return m_most;
    }

  private:
    int64_t m_second{0}; //!< the second of the last bytes
    uint64_t m_bytes{0}; //!< bytes in it
    uint64_t m_most{0};  //!< the most of all seconds
};

} // namespace ns3

#endif /* TORA_PEAK_H */
