to c.D
