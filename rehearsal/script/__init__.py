"""Scripts as bytes: header, events, sections, and page tables in an image."""
