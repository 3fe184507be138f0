s/reading_record::judge(inputs, edition, record)?;/if records::inventory(inventory).is_ok() { reading_record::judge(inputs, edition, record)?; }/
