"""What tools/compare-with-rust and tools/bench set beside this repository; README.md says more."""
