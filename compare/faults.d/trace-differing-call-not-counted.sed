s/call: position.calls + 1,/call: position.calls,/
