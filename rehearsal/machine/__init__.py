"""The proved programs: built, run, and what they print."""
