s/if errors.contains(&true) {/if errors.last() == Some(\&true) {/
