s/Updates, Updates, All, All, All, All, All, All, Nothing, Nothing,$/Updates, Updates, All, All, All, All, All, All, Updates, Updates,/
