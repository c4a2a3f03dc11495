"""Definitions of types, and the impls that derive wrote of them, each read for itself."""
