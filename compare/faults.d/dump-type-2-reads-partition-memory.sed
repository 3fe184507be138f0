s/self.kind == 1 || self.kind == 2/self.kind == 1/
