"""The desk: people's files to frames, the proved programs, and what they answered in words. It decides nothing about likeness."""
