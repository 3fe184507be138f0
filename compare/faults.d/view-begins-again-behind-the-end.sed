s/return (Given::End, \*position);/return (Given::End, view_start(area));/
