"""The service `summarystored`: sensors write to it, people look at it, and one store is behind it."""
