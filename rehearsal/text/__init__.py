"""Scripts as text; docs/TEXT.md describes the format."""
