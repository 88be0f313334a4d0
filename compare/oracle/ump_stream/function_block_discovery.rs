//! Stand-in: a kind that is not compared, so that the dispatch has its case.
other_kind!(FunctionBlockDiscovery, 0x10);
