"""Pictures of a plant and of what dp writes. Nothing here is proved, and nothing of it is in the program."""
