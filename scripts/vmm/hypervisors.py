"""The hypervisors that there are, by their names."""
from . import cloud_hypervisor, kvmtool, qemu
from .hypervisor import Hypervisor

ALL: tuple[Hypervisor, ...] = (qemu, kvmtool, cloud_hypervisor)
HYPERVISORS: dict[str, Hypervisor] = {each.NAME: each for each in ALL}
