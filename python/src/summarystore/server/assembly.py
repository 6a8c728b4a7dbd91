"""What belongs to a service: its listeners, and its addresses by HTTP."""

from __future__ import annotations

import logging
from collections.abc import Sequence
from importlib import import_module
from types import ModuleType

from . import access, health, http_in, http_out, lines, making, openapi, repair, streaming, thresholds
from .app import Service
from .endpoints import Endpoint
from .errors import ConfigurationError
from .http import Http

log = logging.getLogger("summarystored")


def _part(name: str) -> ModuleType | None:
    """A module of this package. None where what it stands on isn't installed."""
    try:
        return import_module(f".{name}", __package__)
    except ModuleNotFoundError as error:
        log.warning("left out: part=%s missing=%s", name, error.name)
        return None


def _needed(name: str) -> ModuleType:
    """A module that the configuration asks for."""
    found = _part(name)
    if found is None:
        raise ConfigurationError("summarystored", f"[{name}]", "what it stands on isn't installed")
    return found


def endpoints_of(service: Service) -> Sequence[Endpoint]:
    """All addresses by HTTP."""
    found = [*http_in.endpoints(service), *http_out.endpoints(service), *streaming.endpoints(service),
             *health.endpoints(service), *repair.endpoints(service), *access.endpoints(service),
             *openapi.endpoints(), *lines.endpoints(service), *making.endpoints(service),
             *thresholds.endpoints(service)]
    for name in ("graphite_out", "metrics", "refusals", "prometheus_in"):
        part = _part(name)
        if part is not None:
            found += part.endpoints(service)
    page = _part("page")
    if page is not None:
        found += page.routes()
    return found


def assemble(service: Service) -> Http:
    """Attaches the listeners that the configuration asks for. Gives that of HTTP."""
    configuration = service.configuration
    if configuration.graphite.listen is not None:
        service.attach(_needed("graphite").GraphiteListener(service, configuration.graphite.listen))
    publish = None
    if configuration.mqtt.broker is not None:
        mqtt = _needed("mqtt").MqttListener(service)
        publish = mqtt.subscriber.publish
        service.attach(mqtt)
    if configuration.thresholds:
        service.attach(thresholds.Thresholds(service, publish))
    http = Http(service, endpoints_of(service))
    service.attach(http)
    return http
