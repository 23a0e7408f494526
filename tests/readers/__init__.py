"""A second, slow reader of all boxes, the inputs for it, and its comparison with the codec."""
