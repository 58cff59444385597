"""What bindings/test tries, by language."""
