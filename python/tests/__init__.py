"""Tests of the desk: tools/test_desk runs them all."""
