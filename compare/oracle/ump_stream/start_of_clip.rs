//! Stand-in: a kind that is not compared, so that the dispatch has its case.
other_kind!(StartOfClip, 0x20);
