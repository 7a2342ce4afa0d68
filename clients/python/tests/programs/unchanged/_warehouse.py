"""What `warehouse_module` takes from."""

boxes = 10


def take(amount):
    global boxes
    boxes = boxes - amount  # race: read, write
