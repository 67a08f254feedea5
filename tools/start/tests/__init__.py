"""Tests of how the checked program is made."""
