s/if state.records > replay::LAST_NUMBER {/if state.records > replay::LAST_NUMBER + 1 {/
