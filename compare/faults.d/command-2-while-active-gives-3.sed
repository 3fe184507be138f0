s/if phase == Phase::Active && (command == 1 || command == 2) {/if phase == Phase::Active \&\& command == 1 {/
