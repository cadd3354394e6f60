"""What several tools beside this folder need."""
