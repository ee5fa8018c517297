"""What starts, stops and kills a shard's pdpd: systemd or runit."""
from .runit import LOGS, Runit
from .systemd import Systemd


def of(settings):
    """What the settings name."""
    return Systemd(settings) if settings.supervisor == "systemd" else Runit(settings)


__all__ = ["LOGS", "of"]
