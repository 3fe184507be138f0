s/self.first_section + 40 \* self.sections/u64::from((self.first_section as u32).wrapping_add(40 * self.sections as u32))/
