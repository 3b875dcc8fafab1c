"""What pages print from the sources: the list of crates, and the definitions in reading order."""
