"""What safl-look is made of."""
NAME = "safl-look"
