class ACCOUNT
feature
  close
    do
    end
end
