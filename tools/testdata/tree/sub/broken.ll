this module is broken
