"""Modules, grammar files and texts of known shapes, near any size: for times, counts and hostile checks."""
