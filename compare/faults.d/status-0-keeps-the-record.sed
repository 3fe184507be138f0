s/let reading = reading_record::after_answer(&inputs, edition, &outputs);/let reading = if outputs.status == 0 { reading } else { reading_record::after_answer(\&inputs, edition, \&outputs) };/
