"""What `module_attribute_from_outside` raises."""

orders = 0


def count():
    return orders
