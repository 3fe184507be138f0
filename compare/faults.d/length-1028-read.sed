s/if field == 0 || field > 1_024 ||/if field == 0 || field > 1_028 ||/
