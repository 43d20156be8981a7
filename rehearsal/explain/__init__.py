"""Listings in words."""
