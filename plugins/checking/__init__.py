"""The parts of plugins/check."""
