"""What `module_lock_and_globals` imports: its variables are guarded by its lock."""

import threading

_lock = threading.Lock()
_balances = {}
changes = 0


def deposit(name, amount):
    global changes
    with _lock:
        _balances[name] = _balances.get(name, 0) + amount
        changes += 1


def total():
    with _lock:
        return sum(_balances.values())
