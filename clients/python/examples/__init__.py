"""Workflows as code: each module has one, its activities, and a scenario that a test plays."""
