"""The words of scripts: names, how numbers are written, and the form of each event."""
