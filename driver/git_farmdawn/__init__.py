"""git farmdawn: a driver of the proved engine `farmdawn serve`."""
