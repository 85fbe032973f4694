"""Caches of what repeats in logs."""

# How much is cached, before a batch adds its own.
KEPT = 1 << 17


class Cache(dict):
    """What is known of a log's texts. `__missing__` adds what is new."""

    def make_room(self):
        """Empties a full cache, between batches."""
        if len(self) >= KEPT:
            self.clear()
