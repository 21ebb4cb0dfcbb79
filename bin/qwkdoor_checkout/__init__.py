"""What a checkout alone needs: its program, compiled without a proof, and its tests. Nothing of it is installed."""
