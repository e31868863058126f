"""Pictures of a tree. picture.py is the way in."""
