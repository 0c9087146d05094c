"""What the gate says, in sentences."""
