"""An independent model of `mercator check`."""
