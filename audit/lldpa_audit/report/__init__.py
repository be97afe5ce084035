"""Reports what an audit has found: as lines, JSON, JUnit, metrics, and a page."""
