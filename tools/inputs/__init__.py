"""Inputs of any size, drawn or made: plans, days, documents, streams of events."""
