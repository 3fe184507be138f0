s/^        if \*sum > LARGEST {$/        if *sum >= LARGEST {/
