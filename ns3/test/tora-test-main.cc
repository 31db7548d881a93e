// SPDX-FileCopyrightText: 2026 the Ginavoru authors
// SPDX-License-Identifier: GPL-2.0-only

/**
 * \file
 * Runs the tests where there is no ns-3 tree, whose test-runner does otherwise.
 */
#include "ns3/test.h"

/**
 * \param argc how many words there are
 * \param argv the words, as ns-3's test-runner takes them
 * \returns 0 where all tests pass
 */
int
main(int argc, char* argv[])
{
    return ns3::TestRunner::Run(argc, argv);
}
