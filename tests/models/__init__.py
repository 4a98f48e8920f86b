"""What docs/PROTOCOL.md and docs/COLLECTOR.md say, once more; nothing of the program is used."""
