"""What the organiser's programs are made of."""
