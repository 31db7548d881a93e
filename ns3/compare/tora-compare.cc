// SPDX-FileCopyrightText: 2026 the Ginavoru authors
// SPDX-License-Identifier: GPL-2.0-only

/*
 * One run of a comparison: moving nodes with radios, flows of data packets, and one of four routing
 * protocols. The same seed gives the same motion, flows and radios, whatever the protocol. It
 * prints one row of CSV; docs/studies/ns-3.md tells the columns, and ns3/compare/Snakefile makes
 * many runs.
 *
 *   tora-compare --protocol=TORA --nodes=20 --speed=10 --flows=5 --seed=1 [--header]
 *   tora-compare --help lists all words
 */
#include "tora-comparison.h"

#include "ns3/core-module.h"

using namespace ns3;

int
main(int argc, char* argv[])
{
    ToraComparisonSetup setup;
    // ARP of ns-3 gives a neighbour up for 100 s that misses three requests, and keeps three
    // packets for one that it asks: both take packets away from whoever asks amid a flood, and are
    // no matter of routing. So they are these for each protocol;
    // --ns3::ArpCache::DeadTimeout=100s --ns3::ArpCache::PendingQueueSize=3 are ns-3's own.
    Config::SetDefault("ns3::ArpCache::DeadTimeout", TimeValue(Seconds(1)));
    Config::SetDefault("ns3::ArpCache::PendingQueueSize", UintegerValue(64));
    CommandLine cmd(__FILE__);
    cmd.AddValue("protocol", "TORA, AODV, OLSR or DSDV", setup.protocol);
    cmd.AddValue("label", "what the row calls the protocol", setup.label);
    cmd.AddValue("nodes", "how many nodes", setup.nodes);
    cmd.AddValue("speed", "the greatest speed in m/s, 0: nobody moves", setup.speed);
    cmd.AddValue("flows", "how many flows", setup.flows);
    cmd.AddValue("seed", "the run of ns-3's generator", setup.seed);
    cmd.AddValue("side", "the side of the square in m", setup.side);
    cmd.AddValue("height", "the other side of the area in m, 0: it is a square", setup.height);
    cmd.AddValue("range", "the range of a radio in m", setup.range);
    cmd.AddValue("seconds", "how long packets are sent", setup.seconds);
    cmd.AddValue("rate", "packets a second of each flow", setup.rate);
    cmd.AddValue("size", "bytes of a packet's payload", setup.size);
    cmd.AddValue("times", "TORA: the times of links, HELLO,SILENT,RETRY,TRIES", setup.times);
    cmd.AddValue("tick", "TORA: the tick", setup.tick);
    cmd.AddValue("notice", "TORA: the radio's reports cut links", setup.isNoticing);
    cmd.AddValue("waits", "TORA: packets that come back wait", setup.isReturnWaiting);
    cmd.AddValue("salvage", "TORA: packets that the radio gives up wait", setup.isSalvaging);
    cmd.AddValue("erasure",
                 "TORA: what nodes make of erased levels, plain or remembered",
                 setup.erasure);
    cmd.AddValue("header", "print the names of the columns, too", setup.hasHeader);
    cmd.Parse(argc, argv);

    ToraComparison comparison(setup);
    comparison.Run();
    comparison.Print();
    Simulator::Destroy();
    return 0;
}
